"""The data dictionary of the models, typed from PS3.6 chapter 6 (and PS3.7 annex E for none): tags
with their value representations and keywords, group by group. Data sets are read, composed and
shown by it.

Use: dictionary.py     prints keyword, tag and value representation of each
"""
from collections.abc import Iterator


DICTIONARY_TEXT = """
0008: 0005 CS SpecificCharacterSet 0008 CS ImageType 0012 DA InstanceCreationDate
    0013 TM InstanceCreationTime 0014 UI InstanceCreatorUID 0016 UI SOPClassUID
    0018 UI SOPInstanceUID 0020 DA StudyDate 0021 DA SeriesDate 0022 DA AcquisitionDate
    0023 DA ContentDate 002A DT AcquisitionDateTime 0030 TM StudyTime 0031 TM SeriesTime
    0032 TM AcquisitionTime 0033 TM ContentTime 0050 SH AccessionNumber 0052 CS QueryRetrieveLevel
    0054 AE RetrieveAETitle 0056 CS InstanceAvailability 0060 CS Modality 0061 CS ModalitiesInStudy
    0062 UI SOPClassesInStudy 0064 CS ConversionType 0070 LO Manufacturer 0080 LO InstitutionName
    0081 ST InstitutionAddress 0090 PN ReferringPhysicianName 0100 SH CodeValue
    0102 SH CodingSchemeDesignator 0103 SH CodingSchemeVersion 0104 LO CodeMeaning
    0201 SH TimezoneOffsetFromUTC 1010 SH StationName 1030 LO StudyDescription
    1032 SQ ProcedureCodeSequence 103E LO SeriesDescription 1040 LO InstitutionalDepartmentName
    1048 PN PhysiciansOfRecord 1050 PN PerformingPhysicianName 1060 PN NameOfPhysiciansReadingStudy
    1070 PN OperatorsName 1080 LO AdmittingDiagnosesDescription 1090 LO ManufacturerModelName
    1110 SQ ReferencedStudySequence 1111 SQ ReferencedPerformedProcedureStepSequence
    1115 SQ ReferencedSeriesSequence 1120 SQ ReferencedPatientSequence
    1140 SQ ReferencedImageSequence 1150 UI ReferencedSOPClassUID 1155 UI ReferencedSOPInstanceUID
    1199 SQ ReferencedSOPSequence 2111 ST DerivationDescription 2112 SQ SourceImageSequence
0010: 0010 PN PatientName 0020 LO PatientID 0021 LO IssuerOfPatientID 0030 DA PatientBirthDate
    0032 TM PatientBirthTime 0040 CS PatientSex 1000 LO OtherPatientIDs 1001 PN OtherPatientNames
    1010 AS PatientAge 1020 DS PatientSize 1030 DS PatientWeight 2000 LO MedicalAlerts
    2110 LO Allergies 2160 SH EthnicGroup 2180 SH Occupation 21B0 LT AdditionalPatientHistory
    21C0 US PregnancyStatus 4000 LT PatientComments
0018: 0015 CS BodyPartExamined 0050 DS SliceThickness 0060 DS KVP 0080 DS RepetitionTime
    0081 DS EchoTime 1000 LO DeviceSerialNumber 1020 LO SoftwareVersions 1030 LO ProtocolName
    1151 IS XRayTubeCurrent 5100 CS PatientPosition
0020: 000D UI StudyInstanceUID 000E UI SeriesInstanceUID 0010 SH StudyID 0011 IS SeriesNumber
    0012 IS AcquisitionNumber 0013 IS InstanceNumber 0032 DS ImagePositionPatient
    0037 DS ImageOrientationPatient 0052 UI FrameOfReferenceUID 0060 CS Laterality
    1041 DS SliceLocation 1206 IS NumberOfStudyRelatedSeries 1208 IS NumberOfStudyRelatedInstances
    1209 IS NumberOfSeriesRelatedInstances 4000 LT ImageComments
0028: 0002 US SamplesPerPixel 0004 CS PhotometricInterpretation 0008 IS NumberOfFrames 0010 US Rows
    0011 US Columns 0030 DS PixelSpacing 0100 US BitsAllocated 0101 US BitsStored 0102 US HighBit
    0103 US PixelRepresentation 1050 DS WindowCenter 1051 DS WindowWidth 1052 DS RescaleIntercept
    1053 DS RescaleSlope
0032: 1032 PN RequestingPhysician 1033 LO RequestingService 1060 LO RequestedProcedureDescription
    1064 SQ RequestedProcedureCodeSequence
0038: 0010 LO AdmissionID 0050 LO SpecialNeeds 0300 LO CurrentPatientLocation 0500 LO PatientState
0040: 0001 AE ScheduledStationAETitle 0002 DA ScheduledProcedureStepStartDate
    0003 TM ScheduledProcedureStepStartTime 0004 DA ScheduledProcedureStepEndDate
    0005 TM ScheduledProcedureStepEndTime 0006 PN ScheduledPerformingPhysicianName
    0007 LO ScheduledProcedureStepDescription 0008 SQ ScheduledProtocolCodeSequence
    0009 SH ScheduledProcedureStepID 0010 SH ScheduledStationName
    0011 SH ScheduledProcedureStepLocation 0012 LO PreMedication
    0020 CS ScheduledProcedureStepStatus 0100 SQ ScheduledProcedureStepSequence
    0220 SQ ReferencedNonImageCompositeSOPInstanceSequence 0241 AE PerformedStationAETitle
    0242 SH PerformedStationName 0243 SH PerformedLocation 0244 DA PerformedProcedureStepStartDate
    0245 TM PerformedProcedureStepStartTime 0250 DA PerformedProcedureStepEndDate
    0251 TM PerformedProcedureStepEndTime 0252 CS PerformedProcedureStepStatus
    0253 SH PerformedProcedureStepID 0254 LO PerformedProcedureStepDescription
    0255 LO PerformedProcedureTypeDescription 0260 SQ PerformedProtocolCodeSequence
    0270 SQ ScheduledStepAttributesSequence 0275 SQ RequestAttributesSequence
    0280 ST CommentsOnThePerformedProcedureStep
    0281 SQ PerformedProcedureStepDiscontinuationReasonCodeSequence 0340 SQ PerformedSeriesSequence
    1001 SH RequestedProcedureID 1002 LO ReasonForTheRequestedProcedure
    1003 SH RequestedProcedurePriority 1004 LO PatientTransportArrangements
    1400 LT RequestedProcedureComments 2016 LO PlacerOrderNumberImagingServiceRequest
    2017 LO FillerOrderNumberImagingServiceRequest 2400 LT ImagingServiceRequestComments
7FE0: 0010 OW PixelData
"""


def entries() -> Iterator[tuple[tuple[int, int], str, str]]:
    """Each tag with its value representation and its keyword."""
    group, words = 0, DICTIONARY_TEXT.split()
    while words:
        word = words.pop(0)
        if word.endswith(":"):
            group = int(word[:-1], 16)
        else:
            yield (group, int(word, 16)), words.pop(0), words.pop(0)


DICTIONARY = {tag: vr for tag, vr, _ in entries()}
KEYWORDS = {keyword: tag for tag, _, keyword in entries()}


def main(_words: list[str]) -> None:
    for tag, vr, keyword in entries():
        print(keyword, "%04X%04X" % tag, vr)
